"""Headless Chromium, driven by its DevTools protocol over a pipe: JSON, each message with a byte 0 after it."""
import base64
import itertools
import json
import os
import queue
import shutil
import subprocess
import threading

# No sandbox, since containers have none for it; no proxy of the environment; sound without a device; and pages that nobody looks at are not slowed down.
WORDS = ('--headless=new --remote-debugging-pipe --no-sandbox --no-first-run --no-proxy-server --mute-audio --autoplay-policy=no-user-gesture-required --disable-gpu --disable-dev-shm-usage '
         '--disable-background-timer-throttling --disable-renderer-backgrounding --disable-backgrounding-occluded-windows --disable-component-update --disable-background-networking '
         '--disable-sync --disable-extensions --hide-scrollbars').split()


class Fault(Exception):
    """What the browser refuses, or a page threw."""


class Chromium:
    """A browser with a profile in a folder that is the caller's."""

    def __init__(self, folder):
        ours, theirs = os.pipe(), os.pipe()
        command = [shutil.which('chromium'), *WORDS, f'--user-data-dir={folder}/profile', 'about:blank']
        # (The browser reads its descriptor 3 and writes to 4.)
        joined = ['bash', '-c', f'exec 3<&{ours[0]} 4>&{theirs[1]} && exec "$@"', 'bash', *command]
        with open(folder / 'chromium.log', 'wb') as log:
            self.process = subprocess.Popen(joined, stdin=subprocess.DEVNULL, stdout=log, stderr=log, pass_fds=(ours[0], theirs[1]), start_new_session=True)
        os.close(ours[0])
        os.close(theirs[1])
        self.to, self.source = os.fdopen(ours[1], 'wb', buffering=0), os.fdopen(theirs[0], 'rb')
        self.numbers, self.answers, self.lock, self.faults = itertools.count(1), {}, threading.Lock(), []
        threading.Thread(target=self.read, daemon=True).start()

    def read(self):
        """Hands each answer to who waits for it, and keeps what pages threw."""
        rest = b''
        while piece := self.source.read1(1 << 20):
            *whole, rest = (rest + piece).split(b'\0')
            for message in map(json.loads, whole):
                if 'id' in message:
                    self.answers.pop(message['id']).put(message)
                elif message['method'] == 'Runtime.exceptionThrown':
                    details = message['params']['exceptionDetails']
                    self.faults.append(details.get('exception', {}).get('description') or details['text'])

    def call(self, method, session=None, seconds=30, **params):
        """Calls a method, and returns its result."""
        number, box = next(self.numbers), queue.Queue()
        self.answers[number] = box
        message = {'id': number, 'method': method, 'params': params, **({'sessionId': session} if session else {})}
        with self.lock:
            self.to.write(json.dumps(message).encode() + b'\0')
        try:
            answer = box.get(timeout=seconds)
        except queue.Empty:
            raise Fault(f'{method} has no answer within {seconds} s') from None
        if 'error' in answer:
            raise Fault(f"{method}: {answer['error']['message']}")
        return answer['result']

    def version(self):
        return self.call('Browser.getVersion', seconds=60)['product']

    def page(self, address, before=''):
        """Opens a page in a tab of its own, which runs the script `before` first."""
        target = self.call('Target.createTarget', url='about:blank', newWindow=True, width=1400, height=1000)['targetId']
        page = Page(self, self.call('Target.attachToTarget', targetId=target, flatten=True)['sessionId'])
        for name in 'Runtime', 'Page':
            page.call(f'{name}.enable')
        page.call('Page.addScriptToEvaluateOnNewDocument', source=before)
        page.call('Page.navigate', url=address)
        return page

    def close(self):
        """Ends the browser, with the processes that it started."""
        try:
            os.killpg(self.process.pid, 9)
        except ProcessLookupError:
            pass
        self.process.wait()


class Page:
    """A tab of a browser."""

    def __init__(self, browser, session):
        self.browser, self.session = browser, session

    def call(self, method, **params):
        return self.browser.call(method, self.session, **params)

    def value(self, expression):
        """Returns the value of an expression in the page, or of what it promises."""
        answer = self.call('Runtime.evaluate', expression=expression, returnByValue=True, awaitPromise=True)
        if 'exceptionDetails' in answer:
            details = answer['exceptionDetails']
            raise Fault(details.get('exception', {}).get('description') or details['text'])
        return answer['result'].get('value')

    def picture(self):
        """Returns the PNG of the whole page."""
        return base64.b64decode(self.call('Page.captureScreenshot', captureBeyondViewport=True)['data'])
