#!/usr/bin/env python3
"""Images of the stock library of memory mapped values, read by the program, and the program's images, read by stock mmvdump.

Usage: mmv.py PROGRAM

mmv_images.c writes images by each call of libpcp_mmv that makes one. Of each: `mmv-dump` gives a text, which says what mmvdump says of
the image; `mmv-make` of the text gives an image of which mmvdump says the same; and so does `mmv-lift`, in version 2. The version, the
offsets and the order of contents are left out of that. What differs is printed; the last line is `N images, M differ`.

On Debian: apt-get install --no-install-recommends gcc pcp libpcp3-dev libpcp-mmv1-dev. No service of pcp has to run."""
import os, re, subprocess, sys, tempfile

HERE = os.path.dirname(os.path.realpath(__file__))
MMVDUMP = '/usr/lib/pcp/pmdas/mmv/mmvdump'
KINDS = {'32-bit int': 'i32', '32-bit unsigned int': 'u32', '64-bit int': 'i64', '64-bit unsigned int': 'u64', 'float': 'float',
    'double': 'double', 'string': 'string', 'elapsed': 'elapsed'}


def run(command, given=b''):
    return subprocess.run(command, input=given, stdout=subprocess.PIPE, stderr=subprocess.STDOUT)


def stock(folder, image):
    """What mmvdump says of an image: its version, its header, its rows by section, and its strings; without offsets."""
    path = os.path.join(folder, 'dumped')
    with open(path, 'wb') as it:
        it.write(image)
    said = run([MMVDUMP, path])
    sections, name, header, version = {}, None, [], None
    for line in said.stdout.decode('latin-1').split('\n'):
        found = re.match(r'TOC\[\d+\]: .*?(indoms|instances|metrics|values|string) offset', line)
        if found:
            name = found[1]
            sections[name] = []
        elif name is None and line.startswith('Version'):
            version = int(line.split('=')[1])
        elif name is None and re.match(r'Generated|Cluster|Process|Flags', line):
            header.append(line)
        elif name and line.strip():
            line = re.sub(r'^(  \[\d+)/\d+\]', r'\1]', line)
            sections[name].append(re.sub(r', starting at offset \d+$', '', line))
    strings = [re.sub(r'^  \[\d+\] ', '', line) for line in sections.pop('string', [])]
    if said.returncode or version is None:
        header.append('mmvdump: status %d\n%s' % (said.returncode, said.stdout.decode('latin-1')))
    return version, header, sections, strings


def words_of(line):
    """The words of a line of layout text; a quoted text is one, without its escapes."""
    words = re.findall(r'"(?:[^"\\]|\\.[0-9a-f]*)*"|\S+', line)
    return [re.sub(r'\\x([0-9a-f]{2})|\\(.)', lambda m: chr(int(m[1], 16)) if m[1] else m[2], w[1:-1]) if w[0] == '"' else w for w in words]


def said_by(text):
    """What a layout text says of metrics and values, as mmvdump says it."""
    names, kinds, domains, members, metrics, values = {}, {}, {}, {}, [], []
    for line in text.split('\n'):
        words = words_of(line)
        if words[:1] == ['instance']:
            members[words[1], words[2]] = words[3]
        if words[:1] == ['metric']:
            name, item, kind, semantics, _, domain, short, long = words[1:]
            names[item], kinds[item], domains[item] = name, kind, domain
            metrics.append((item, name, kind, semantics, domain, short, long))
        if words[:1] == ['value'] and kinds[words[1]] in ('i32', 'u32', 'i64', 'u64', 'string'):
            item, instance, content = words[1:]
            shown = names[item] if instance == '-' else '%s[%s or "%s"]' % (names[item], instance, members[domains[item], instance])
            values.append((item, shown, '"%s"' % content if kinds[item] == 'string' else content))
    return metrics, values


def said_of(sections):
    """The same of what mmvdump says."""
    metrics, values = [], []
    for line in sections.get('metrics', []):
        found = re.match(r'  \[(\d+)\] (.*)', line)
        if found:
            metrics.append([found[1], found[2], None, None, '-', '-', '-'])
            continue
        row, line = metrics[-1], line.strip()
        found = re.match(r'type=(.*) \(0x\d\), sem=(\w+)', line)
        if found:
            row[2:4] = KINDS[found[1]], found[2]
        for at, start in (4, 'indom='), (5, 'shorttext='), (6, 'helptext='):
            if line.startswith(start):
                row[at] = line[len(start):]
    kinds = {row[0]: row[2] for row in metrics}
    for line in sections.get('values', []):
        item, name, shown = re.match(r'  \[(\d+)\] (.*?) = (.*)', line).groups()
        if kinds[item] in ('i32', 'u32', 'i64', 'u64', 'string'):
            values.append((item, name, shown))
    return [tuple(row) for row in metrics], values


def differences(program, folder, image):
    """What differs, a line each."""
    _, header, sections, strings = stock(folder, image)
    out = []
    dumped = run([program, 'x', 'mmv-dump'], image)
    if dumped.returncode:
        return ['mmv-dump: status %d, %s' % (dumped.returncode, dumped.stdout.decode('latin-1').strip())]
    for ours, theirs in zip(said_by(dumped.stdout.decode('latin-1')), said_of(sections)):
        out += ['mmv-dump says %s, mmvdump doesn\'t' % (row,) for row in ours if row not in theirs]
        out += ['mmvdump says %s, mmv-dump doesn\'t' % (row,) for row in theirs if row not in ours]
    for command, given in ('mmv-make', dumped.stdout), ('mmv-lift', image):
        made = run([program, 'x', command], given)
        if made.returncode:
            out.append('%s: status %d, %s' % (command, made.returncode, made.stdout.decode('latin-1').strip()))
            continue
        version, head, rows, texts = stock(folder, made.stdout)
        if command == 'mmv-lift' and version != 2:
            out.append('mmv-lift: version %s' % version)
        if texts[:len(strings)] != strings or command == 'mmv-make' and texts != strings:
            out.append('%s: other strings, %s' % (command, texts))
        if head != header:
            out.append('%s: another header, %s' % (command, head))
        for name in sorted(set(sections) | set(rows)):
            if sections.get(name) != rows.get(name):
                out += ['%s: other %s' % (command, name)] + ['  %s' % line for line in rows.get(name, [])]
    return out


def main(program):
    if not os.path.exists(MMVDUMP):
        return 'no %s: install pcp' % MMVDUMP
    with tempfile.TemporaryDirectory() as folder:
        os.mkdir(os.path.join(folder, 'mmv'))
        binary = os.path.join(folder, 'mmv_images')
        built = run(['gcc', '-o', binary, os.path.join(HERE, 'mmv_images.c'), '-lpcp_mmv', '-lpcp'])
        if built.returncode:
            return built.stdout.decode()
        written = subprocess.run([binary], env=dict(os.environ, PCP_TMP_DIR=folder))
        images = sorted(os.listdir(os.path.join(folder, 'mmv')))
        differ = 0
        for name in images:
            with open(os.path.join(folder, 'mmv', name), 'rb') as it:
                image = it.read()
            found = differences(os.path.realpath(program), folder, image)
            print('%s, version %d, %d bytes: %s' % (name, image[4], len(image), 'differs' if found else 'the same'))
            for line in found:
                print('  ' + line)
            differ += bool(found)
        print('%d images, %d differ' % (len(images), differ))
        return differ != 0 or written.returncode


if __name__ == '__main__':
    if len(sys.argv) != 2:
        sys.exit(__doc__)
    sys.exit(main(sys.argv[1]))
