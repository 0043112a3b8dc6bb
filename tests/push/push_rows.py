"""The rows of those tests of `llhls push` whose words are a table. An answer has escapes as in Python."""

# Inputs that are refused, each with the fault.
SERVER_REFUSES = '''\
bad_box BadBox
endless_box BadBox
large_box TooLarge
empty NoMoov
no_more_than_its_type NoMoov
no_movie NoMoov
no_track Missing trak
no_scale NoTimeScale
other_track OtherTrack
long TooLong
two_moofs Several moof
cut Cut
no_mdat Missing mdat
'''
# Plans of an origin that hangs up before a message, at once or after some; in the middle of one; or before its answer; each with the number of lost connections.
HANGS_UP = (
    ('close/ok,ok,ok,ok', 1),
    ('ok,close/ok,ok,ok', 1),
    ('ok,close/ok,close/ok,ok', 2),
    ('ok,ok,ok,close/ok', 1),
)
GOES_ON_AFTER = (
    ('?close/?half/?drop/ok,ok,ok,ok', 3),
    ('half/?drop/lose/ok,half/drop/lose/ok,lose/ok', 7),
)
# Plans of one that accepts messages, some of which it can't keep on disk; each with the number of lost connections.
KEEPS_NOT_ALL = (
    ('unkept,ok,ok,ok', 0),
    ('ok,ok,ok,unkept', 0),
    ('unkept,unkept,ok,unkept', 0),
    ('ok,unkept,drop/unkept,close/unkept', 2),
)
# Plans of one that refuses a message, with its refusal and the number of messages that it has accepted.
ORIGIN_REFUSES = (
    (r'ok,no 4 TooLong\n', 'no 4 TooLong', 1),
    (r'no 14 UnknownChannel\n', 'no 14 UnknownChannel', 0),
    (r'ok,no 20 NotKeptYet\n', 'no 20 NotKeptYet', 1),
    (r'ok,no 21 NotKept\n', 'no 21 NotKept', 1),
    (r'ok,no 020 NotKept\n', 'no 020 NotKept', 1),
    (r'unkept,no 12 Memory\n', 'no 12 Memory', 1),
    (r'ok,ok,ok,no 2 Ended\n', 'no 2 Ended', 3),
    (r'?no 14 UnknownChannel\n', 'no 14 UnknownChannel', 0),
    (r'?no 13 BadLine\n', 'no 13 BadLine', 0),
    (r'ok,drop/?at 5 0 0 0 4000000000000\n,ok,ok,no 2 Ended\n', 'no 2 Ended', 3),
)
# Answers after a lost connection that say the rendition stands where this push can't have brought it.
ELSEWHERE = r'''at 5 0 2 500000 4000000000500\n
at 5 1 0 500000 4000000000500\n
at 5 0 1 1 4000000000500\n
at 5 0 1 500000 4000000000500 ended\n
at 5 0 0 1 4000000000000\n
'''
# No answers to the question where the rendition stands, and no answers to a message.
BAD_PLACES = r'''ok 1\n
no 20 NotKept\n
at\n
at 1 2 3 4\n
at 1 2 3 4 5 6\n
at 1 2 3 4 5 end\n
at 1 2 3 4 05\n
at 1 2 3 4 18446744073709551616\n
at 1 2 3 4 5\r\n
'''
# Where the rendition stands, and the lines that a push begins with.
STARTS = (
    ('0,0,0,4000000000000', ''),
    ('4,2,1500000,0', 'cam finish hi cam break hi NOW'),
    ('4,2,1500000,4000000000000', 'cam finish hi cam break hi'),
    ('4,0,1500000,0', 'cam break hi NOW'),
    ('4,0,3456000000000,4000000000000', 'cam break hi'),
    ('0,0,0,0', 'cam break hi NOW'),
)
BAD_ANSWERS = r'''\n
ok\n
ok \n
ok x\n
ok -1\n
OK 1\n
ok 1\r\n
ok 18446744073709551616\n
no\n
no 4\n
no 4 \n
no x TooLong\n
no 4 Too Long\n
no 4 \x1b[2J\n
no 20 NotKept \n
ok 1\nok 2\n
\xff\n
ok 1                                                            \n
This is no answer but a text that goes on and on and has no end whatever is read of it and nothing in it says what became of that which was sent
'''
# Words that the program refuses, the first of them none.
WRONG_WORDS = '''
127.0.0.1:1 cam hi part=1
127.0.0.1:1 cam hi part=1 segment=1 more
127.0.0.1 cam hi part=1 segment=1
127.0.0.1:65536 cam hi part=1 segment=1
127.0.0.256:1 cam hi part=1 segment=1
localhost cam hi part=1 segment=1
localhost: cam hi part=1 segment=1
localhost:+1 cam hi part=1 segment=1
:1 cam hi part=1 segment=1
.:1 cam hi part=1 segment=1
local/host:1 cam hi part=1 segment=1
[::1] cam hi part=1 segment=1
[::1]:65536 cam hi part=1 segment=1
[localhost]:1 cam hi part=1 segment=1
::1:1 cam hi part=1 segment=1
unix: cam hi part=1 segment=1
127.0.0.1:1 CAM hi part=1 segment=1
127.0.0.1:1 cam h/i part=1 segment=1
127.0.0.1:1 cam hi segment=1 part=1
127.0.0.1:1 cam hi part= segment=1
127.0.0.1:1 cam hi part=01 segment=1
127.0.0.1:1 cam hi part=1s segment=1
127.0.0.1:1 cam hi part=1 segment=-1
127.0.0.1:1 cam hi part=1 segment=18446744073709551616
127.0.0.1:1 cam hi part=1 segment=1 most=
127.0.0.1:1 cam hi part=2 segment=2 most=1
127.0.0.1:1 cam hi part=1 segment=1 end most=1
127.0.0.1:1 cam hi part=1 segment=1 ahead=yes
127.0.0.1:1 cam hi part=1 segment=1 ahead=no most=1
127.0.0.1:1 cam hi part=1 segment=1 retry=
127.0.0.1:1 cam hi part=1 segment=1 retry=1 ahead=no
127.0.0.1:1 cam hi part=1 segment=1 end retry=1
127.0.0.1:1 cam hi part=1 segment=1 end end
127.0.0.1:1 cam hi part=1 segment=1 secret=
127.0.0.1:1 cam hi part=1 segment=1 secret=a secret=a
127.0.0.1:1 cam hi part=1 segment=1 secret=a end secret=a
127.0.0.1:1 cam hi part=1 segment=1 secret=a keep=1
127.0.0.1:1 cam hi part=1 segment=1 most=1 end more
'''
