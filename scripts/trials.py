"""Must-fail edits, tried by plain commands: in a copy of the crates, rt check of the crate with the edit in it. rt begins with what checks of the same
text kept, and takes the libraries below from the checkout if rt lib built them there."""
import os, subprocess, time
from concurrent.futures import ThreadPoolExecutor
from queue import SimpleQueue

from copies import Copy, listed

AT_ONCE = min(len(os.sched_getaffinity(0)), 4)  # a check may take 2 GB


def changed(edit):
    """the files of a crate as an edit leaves them, by their paths in it, and why the edit cannot be applied"""
    texts, wrong, path, old = {}, [], None, None
    for line in edit.read_text(encoding='utf-8').split('\n'):
        if line.startswith('file: '):
            path = line[len('file: '):].strip()
        elif line.startswith('old: '):
            old = line[len('old: '):]
        elif line.startswith('new:') and path and old:
            file = edit.parents[1] / path
            text = texts.get(path) or (file.read_text(encoding='utf-8') if file.is_file() else '')
            if text.count(old) != 1:
                wrong.append('this text is in %s %d times, and not once: %s' % (path, text.count(old), old))
            texts[path] = text.replace(old, line[len('new:'):].removeprefix(' '))
    return texts, wrong


def tried(copy, edit):
    """what a check of the edit's crate says with the edit in it"""
    name, (texts, wrong) = edit.parts[-3], changed(edit)
    if wrong:
        return '\n'.join(wrong)
    for path, text in texts.items():
        (copy.folder(name) / path).write_text(text, encoding='utf-8')
    said = copy.rt('check', name).stdout
    copy.fresh([name])  # crates above are tried in this copy, too
    return said


def run(top, logs):
    """tries edits, those of lower crates first, and writes what was said of each"""
    order, began, copies = list(listed(top)), time.time(), SimpleQueue()
    for _ in range(AT_ONCE if logs else 0):
        copies.put(Copy(order, top))

    def one(edit):
        copy, start = copies.get(), time.time()
        logs[edit].parent.mkdir(parents=True, exist_ok=True)
        logs[edit].write_text(tried(copy, edit), encoding='utf-8')
        copies.put(copy)
        print('tried %s/%s (%d s)' % (edit.parts[-3], edit.stem, time.time() - start), flush=True)

    with ThreadPoolExecutor(AT_ONCE) as pool:
        list(pool.map(one, sorted(logs, key=lambda edit: (order.index(edit.parts[-3]), edit))))
    print('%d edits tried in %d s, %d at once' % (len(logs), time.time() - began, AT_ONCE), flush=True)
