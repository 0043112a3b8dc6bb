"""spool.py PORT COUNT BYTES: publishes COUNT parts of BYTES bytes, four to a segment, each as soon as the last one is answered. Prints how many are answered in a second, and the median time to
an answer in microseconds."""
import socket
import statistics
import sys
import time

port, count, size = map(int, sys.argv[1:])
media = bytes(size)
with socket.create_connection(('127.0.0.1', port)) as connection:
    connection.setsockopt(socket.IPPROTO_TCP, socket.TCP_NODELAY, 1)
    answers, took = connection.makefile('rb'), []
    began = time.perf_counter()
    for number in range(count):
        sent = time.perf_counter()
        connection.sendall(b'cam part hi 1000000 %s %d\n%s\n' % (b'f' if number % 4 == 3 else b'-', size, media))
        if not answers.readline().startswith(b'ok '):
            sys.exit('a part is refused')
        took.append(time.perf_counter() - sent)
    print(f'{count / (time.perf_counter() - began):.0f} {statistics.median(took) * 1e6:.0f}')
