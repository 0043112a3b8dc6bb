// Runs in a page before its own script, and keeps what its player does: `watched` is read by tests/page.py.
(() => {
    const runs = [], it = window.watched = { appended: [], waits: [], rates: [1, 1], sizes: [], removed: 0, shown: [], frames: 0, back: [], wrong: [], lag: 0 };
    const { appendBuffer, remove } = SourceBuffer.prototype;
    const hex = sum => [...new Uint8Array(sum)].map(byte => byte.toString(16).padStart(2, '0')).join('');
    SourceBuffer.prototype.appendBuffer = function (data) {
        if (!runs.includes(this)) runs.push(this);
        const entry = { run: runs.indexOf(this), offset: this.timestampOffset, at: Date.now() / 1000 };
        it.appended.push(entry);
        crypto.subtle.digest('SHA-256', data.slice(0)).then(sum => entry.hash = hex(sum));
        return appendBuffer.call(this, data);
    };
    SourceBuffer.prototype.remove = function (...words) {
        it.removed++;
        return remove.apply(this, words);
    };
    addEventListener('unhandledrejection', event => it.wrong.push(String(event.reason)));
    addEventListener('error', event => it.wrong.push(event.message || `${event.target} can't be had`), true);
    addEventListener('DOMContentLoaded', () => {
        const video = document.querySelector('video');
        // By how much a timer was late at most, in seconds, once the page had begun.
        let beat = NaN;
        setTimeout(() => setInterval(() => {
            it.lag = Math.max(it.lag, (performance.now() - beat) / 1000 - .05 || 0);
            beat = performance.now();
        }, 50), 2000);
        new MutationObserver(() => it.shown.push(document.getElementById('playlist').textContent)).observe(document.getElementById('playlist'), { childList: true });
        video.addEventListener('waiting', () => video.seeking || it.waits.push({ at: Date.now() / 1000, time: video.currentTime, ranges: video.buffered.length }));
        video.addEventListener('ratechange', () => it.rates = [Math.min(it.rates[0], video.playbackRate), Math.max(it.rates[1], video.playbackRate)]);
        video.addEventListener('resize', () => it.sizes.push(`${video.videoWidth}x${video.videoHeight}`));
        let last = [0, 0];
        const frame = (_, { mediaTime }) => {
            if (last[0] === runs.length && mediaTime < last[1]) it.back.push([last[1], mediaTime]);
            last = [runs.length, mediaTime];
            it.frames++;
            video.requestVideoFrameCallback(frame);
        };
        video.requestVideoFrameCallback(frame);
    });
})();
