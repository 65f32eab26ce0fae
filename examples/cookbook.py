"""The samples of docs/cookbook.md, and what they return: cookbook.py."""

import json
import os
import tempfile

import regress


def is_email(text):
    email = regress.compile(r"^[a-zA-Z0-9.!#$%&'*+\/=?^_`{|}~-]+@[a-zA-Z0-9](?:[a-zA-Z0-9-]{0,61}[a-zA-Z0-9])?"
                            r"(?:\.[a-zA-Z0-9](?:[a-zA-Z0-9-]{0,61}[a-zA-Z0-9])?)*$")
    return email.search(text) is not None


def date_parts(text):
    date = regress.compile(r'^(?<year>\d{4})-(?<month>0[1-9]|1[0-2])-(?<day>0[1-9]|[12]\d|3[01])$', 'u')
    found = date.search(text)
    return found and {name: int(part) for name, part in found.groupdict().items()}


def is_ipv4(text):
    octet = r'(?:25[0-5]|2[0-4]\d|1\d\d|[1-9]?\d)'
    return regress.compile(r'^%s(?:\.%s){3}$' % (octet, octet)).search(text) is not None


def is_strong(password):
    return regress.compile(r'^(?=.*\d)(?=.*[a-z])(?=.*[A-Z]).{12,}$', 'u').search(password) is not None


def csv_fields(line):
    field = regress.compile(r'(?<=^|,)(?:"((?:[^"]|"")*)"|([^",]*))(?=,|$)')
    return [found[2] if found[1] is None else found[1].replace('""', '"') for found in field.finditer(line)]


def links(text):
    return regress.compile(r'https?:\/\/[^\s<>"()]*[^\s<>"().,;:!?]').findall(text)


def prices(text):
    price = regress.compile(r'(?<=\$)\d{1,3}(?:,\d{3})*(?:\.\d{2})?(?!\d)', 'u')
    return [float(amount.replace(',', '')) for amount in price.findall(text)]


def quoted(text):
    return regress.compile(r'"(?:[^"\\]|\\.)*"|' r"'(?:[^'\\]|\\.)*'").findall(text)


def doubled_words(text):
    try:
        return regress.compile(r'\b(\w+)\s+\1\b', 'i', steps=1000000).findall(text)
    except regress.error as error:
        if error.kind != 'OutOfSteps':
            raise
        return None


def greek_words(text):
    return regress.compile(r'[\p{Script=Greek}\p{M}]+', 'u').findall(text)


def without_comments(source):
    return regress.compile(r'\/\*[^]*?\*\/').sub(' ', source)


def request_fields(line):
    request = regress.compile(r'^(?<ip>\S+) \S+ \S+ \[(?<time>[^\]]+)\] "(?<method>[A-Z]+) (?<path>\S+)[^"]*" '
                              r'(?<status>\d{3})')
    found = request.search(line)
    return found and found.groupdict()


def redacted(line):
    return regress.compile(r'\b(token|password|secret)=[^\s&,]+', 'i').sub('$1=***', line)


def rename_photos(folder):
    photo = regress.compile(r'^IMG_(\d{4})(\d\d)(\d\d)_(.+)\.jpe?g$')
    for name in os.listdir(folder):
        if photo.search(name):
            os.rename(os.path.join(folder, name), os.path.join(folder, photo.sub('$1-$2-$3 $4.jpg', name)))


def with_commas(number):
    return regress.compile(r'\B(?=(?:\d{3})+$)').sub(',', number)


def snake_case(name):
    return regress.compile(r'(?<=[a-z\d])[A-Z]').sub(lambda found: '_' + found.group().lower(), name)


def highlighted(text, search):
    return regress.compile(regress.escape(search), 'i').sub('<b>$&</b>', text)


def search_for_a_user(pattern, text):
    try:
        found = regress.compile(pattern, 'u', steps=1000000, nodes=10000, instructions=10000).search(text)
    except regress.error as error:
        # No answer: reject the text, whether a match would allow it or forbid it.
        return '%s: %s' % (error.kind, error.msg)
    return found.group() if found else 'no match'


def violations(schema, document):
    return [name for name, keywords in schema['properties'].items()
            if name in document and not regress.compile(keywords['pattern'], 'u').search(document[name])]


def lint(pattern, flags=''):
    compiled = regress.compile(pattern, flags, dialect='regress')
    warnings = ['%d: %s' % (found.start, found.kind) for found in regress.differences(pattern, flags)]
    return warnings + (['not linear: ' + compiled.nonlinear] if compiled.nonlinear else [])


def check(found, expected):
    assert found == expected, (found, expected)


check([is_email(text) for text in ('ann@example.org', 'ann@-example.org', '@example.org')], [True, False, False])
check(date_parts('2024-05-17'), {'year': 2024, 'month': 5, 'day': 17})
check(date_parts('2024-13-17'), None)
check([is_ipv4(text) for text in ('192.168.0.1', '256.1.1.1', '1.2.3')], [True, False, False])
check([is_strong(text) for text in ('correct horse 1B', 'Short1', 'only lower case 1')], [True, False, False])
check(csv_fields('a,"b, ""c""",,d'), ['a', 'b, "c"', '', 'd'])
check(links('see https://example.org/a?b=c, or (http://example.com/x).'),
      ['https://example.org/a?b=c', 'http://example.com/x'])
check(prices('from $1,299.50 to $20, not $1234'), [1299.5, 20.0])
check(quoted(r'''say "a \"b\"" and 'it"s' '''), [r'"a \"b\""', '\'it"s\''])
check(doubled_words('it is is what The the'), ['is', 'The'])
check(greek_words('the word λόγος, and ΝΟΥΣ'), ['λόγος', 'ΝΟΥΣ'])
check(without_comments('a/* b\nc */d /* e */'), 'a d  ')
check(request_fields('127.0.0.1 - - [17/May/2024:10:00:00 +0000] "GET /a HTTP/1.1" 200 12'), {
    'ip': '127.0.0.1', 'time': '17/May/2024:10:00:00 +0000', 'method': 'GET', 'path': '/a', 'status': '200'})
check(redacted('GET /a?user=ann&Token=s3cr3t HTTP/1.1'), 'GET /a?user=ann&Token=*** HTTP/1.1')
with tempfile.TemporaryDirectory() as folder:
    for name in ('IMG_20240517_beach.jpeg', 'notes.txt'):
        open(os.path.join(folder, name), 'w').close()
    rename_photos(folder)
    check(sorted(os.listdir(folder)), ['2024-05-17 beach.jpg', 'notes.txt'])
check([with_commas(number) for number in ('1234567', '999', '1000')], ['1,234,567', '999', '1,000'])
check(snake_case('parseHttpUrl2Go'), 'parse_http_url2_go')
check(highlighted('Is 1+1 = 2?', '1+1'), 'Is <b>1+1</b> = 2?')
check(search_for_a_user('\\d+', 'on 17'), '17')
check(search_for_a_user('a)', ''), 'UnbalancedParenthesis: unmatched `)` (write `\\)` for the character)')
check(search_for_a_user('(?:(?:ab){9999999999}){9999999999}', ''), 'TooLarge: the pattern is too large')
check(search_for_a_user(r'(a|a)*\1b', 'a' * 40), 'OutOfSteps: the search takes too many steps')
schema = json.loads('{"properties": {"zip": {"pattern": "^\\\\d{5}$"}, "name": {"pattern": "^\\\\p{Lu}"}}}')
check(violations(schema, {'zip': '1234', 'name': 'Änne'}), ['zip'])
check(lint('[k](a)\\1', 'i'), ['0: case-closure', 'not linear: back-reference'])
check(lint('a+b'), [])
print('the samples of the cookbook in Python return what they should')
