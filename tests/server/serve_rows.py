"""The rows of those tests of `llhls serve` whose words are a table."""
from serve_room import CAM, NEXT, PRESENT

LISTEN = 'listen 127.0.0.1:0\n'
BOTH = LISTEN + 'publish 127.0.0.1:0\n'
THREE = BOTH + 'workers 4\n'
SECRET = 'secret ' + '0123456789abcdEF' * 4

# Settings with a fault, each after the line that has it.
BAD_SETTINGS = (
    (1, ''),
    (1, ' \n'),
    (1, f'# a comment\n{THREE}{CAM}\n'),
    (1, f'publish 127.0.0.1:0\nlisten 127.0.0.1:0\nworkers 4\n{CAM}\n'),
    (1, 'listen 127.0.0.1\n'),
    (1, 'listen 127.0.0.1:\n'),
    (1, 'listen 127.0.0.1:x\n'),
    (1, 'listen 127.0.0.1:65536\n'),
    (1, 'listen 127.0.0:1\n'),
    (1, 'listen 256.0.0.1:1\n'),
    (1, 'listen localhost:1\n'),
    (1, 'listen ::1:1\n'),
    (1, 'listen [::1]\n'),
    (1, 'listen [::1]1\n'),
    (1, 'listen [127.0.0.1]:1\n'),
    (1, 'listen unix:a\n'),
    (1, 'listen  127.0.0.1:1\n'),
    (1, 'listen 127.0.0.1:1 \n'),
    (1, 'Listen 127.0.0.1:1\n'),
    (2, LISTEN),
    (2, f'{LISTEN}workers 4\n{CAM}\n'),
    (2, f'{LISTEN}publish 127.0.0.1:-1\n'),
    (2, f'{LISTEN}publish unix:\nworkers 4\n{CAM}\n'),
    (2, f'{LISTEN}publish localhost:1\n'),
    (3, BOTH),
    (3, f'{BOTH}workers\n'),
    (3, f'{BOTH}workers 0\n{CAM}\n'),
    (3, f'{BOTH}workers 4097\n{CAM}\n'),
    (3, f'{BOTH}workers x\n{CAM}\n'),
    (3, f'{BOTH}workers -1\n{CAM}\n'),
    (3, f'{BOTH}workers 18446744073709551616\n{CAM}\n'),
    (3, f'{BOTH}{CAM}\n'),
    (3, f'{BOTH}record a\nworkers 4\n{CAM}\n'),
    (4, THREE),
    (4, f'{THREE}\n{CAM}\n'),
    (4, f'{THREE}channel cam\n'),
    (4, f'{THREE}record\n{CAM}\n'),
    (4, f'{THREE}record \n{CAM}\n'),
    (4, f'{THREE}record \xff\n{CAM}\n'),
    (5, f'{THREE}record a\nrecord b\n{CAM}\n'),
    (5, f'{THREE}{CAM}\nrecord a\n'),
    (5, f'{THREE}record a\n'),
    (4, f'{THREE}log\n{CAM}\n'),
    (4, f'{THREE}log \n{CAM}\n'),
    (4, f'{THREE}log \xff\n{CAM}\n'),
    (5, f'{THREE}log a\nrecord b\n{CAM}\n'),
    (6, f'{THREE}record a\nlog b\nlog c\n{CAM}\n'),
    (6, f'{THREE}record a\nlog b\n'),
    (4, f'{THREE}channel cam target=4 part=1000000 skip=23 window=36 renditions=hi first=0 start=0\n'),
    (4, f'{THREE}channel CAM target=4 part=1000000 skip=24 window=36 renditions=hi first=0 start=0\n'),
    (4, f'{THREE}status\n{CAM}\n'),
    (4, f'{THREE}status 8083\n{CAM}\n'),
    (4, f'{THREE}status unix:a\n{CAM}\n'),
    (5, f'{THREE}status 127.0.0.1:0\nstatus 127.0.0.1:0\n{CAM}\n'),
    (5, f'{THREE}status 127.0.0.1:0\nlog a\n{CAM}\n'),
    (4, f'{THREE}idle\n{CAM}\n'),
    (4, f'{THREE}idle 0\n{CAM}\n'),
    (4, f'{THREE}idle 86401\n{CAM}\n'),
    (5, f'{THREE}idle 30\nstatus 127.0.0.1:0\n{CAM}\n'),
    (5, f'{THREE}idle 30\n'),
    (4, f'{THREE}{SECRET}\n{CAM}\n'),
    (5, f'{THREE}{CAM}\n{SECRET}0\n'),
    (5, f'{THREE}{CAM}\n{SECRET[:-1]}\n'),
    (5, f'{THREE}{CAM}\n{SECRET[:-1]}g\n'),
    (5, f'{THREE}{CAM}\nsecret\n'),
    (5, f'{THREE}{CAM}\nsecret \n'),
    (6, f'{THREE}{CAM}\n{SECRET}\n{SECRET}\n'),
    (4, f'{THREE}\xff\n'),
    (5, f'{THREE}{CAM}\n{CAM}\n'),
    (5, f'{THREE}{CAM}\nworkers 4\n'),
    (5, f'{THREE}{CAM}\n\n'),
    # One channel more than there can be.
    (1028, THREE + ''.join(CAM.replace(' cam ', f' c{number} ') + '\n' for number in range(1025))),
)
# The statuses and faults with which the program ends if these files follow `serve`: one that isn't there, a folder, none, and two.
WRONG_WORDS = (
    (4, 'Read', 'none'),
    (4, 'Read', '.'),
    (2, 'usage'),
    (2, 'usage', 'settings', 'settings'),
)
# What players send who end their side at once, and to how many of these requests they get an answer.
HALF_CLOSED_AT_ONCE = (
    (1, PRESENT),
    (3, PRESENT, PRESENT, PRESENT),
    (3, PRESENT, PRESENT, PRESENT, NEXT, PRESENT),
    (0, NEXT),
)
# Where requests are cut that come before the answer to the first of them, in bytes after the end of that.
CUTS = (
    (),
    (0,),
    (-1,),
    (1,),
    (10,),
    (0, 10),
    (-10, 0, 1, 20),
)
