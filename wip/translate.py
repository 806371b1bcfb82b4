#!/usr/bin/env python3
"""An independent C0 translator, for expected values in tests.

It reads a program by recursive descent, writes the published code with tree
addresses, linearises it, and prints one line for each instruction:
ADDRESS NAME [OPERAND] PLACE LINE:COLUMN. It asks none of the questions: the
sources that it is given are good.

  translate.py FILE           the listing of one source
  translate.py --cases FILE   the listings of many sources, which `====` lines part
"""
import re
import sys

TOKEN = re.compile(rb'#include[ \t]*<stdio\.h>|"%d"|[A-Za-z][A-Za-z0-9]*|[0-9]+|==|!=|<=|>=|[(){},;&=<>+\-*/%]')
RELATIONS = {'==': 'EQ', '!=': 'NE', '<': 'LT', '>': 'GT', '<=': 'LE', '>=': 'GE'}
SUMS = {'+': 'ADD', '-': 'SUB'}
PRODUCTS = {'*': 'MUL', '/': 'DIV', '%': 'MOD'}


class Reader:
    def __init__(self, source):
        self.tokens = []
        at = 0
        while at < len(source):
            if source[at] in b' \t\r\n':
                at += 1
                continue
            found = TOKEN.match(source, at)
            self.tokens.append((found.group().decode(), at))
            at = found.end()
        self.next = 0
        self.cells = {}

    def peek(self):
        return self.tokens[self.next][0]

    def take(self, *texts):
        text, place = self.tokens[self.next]
        assert not texts or text in texts, (text, place, texts)
        self.next += 1
        return text, place

    # program: the lines of its statements
    def program(self):
        for text in ('#include', 'int', 'main', '(', ')', '{'):
            assert self.take()[0].startswith(text)
        if self.peek() == 'int':
            self.take()
            while True:
                name, _ = self.take()
                self.cells[name] = len(self.cells) + 1
                if self.take(',', ';')[0] == ';':
                    break
        lines = self.statements((1,), 'return')
        for text in ('return', '0', ';', '}'):
            self.take(text)
        return lines

    def statements(self, address, stop):
        lines, k = [], 1
        while self.peek() != stop:
            lines += self.statement(address + (k,))
            k += 1
        return lines

    def statement(self, a):
        text, place = self.take()
        if text == '{':
            lines = self.statements(a, '}')
            self.take('}')
            return lines
        if text == 'scanf':
            for t in ('(', '"%d"', ',', '&'):
                self.take(t)
            name, p = self.take()
            self.take(')')
            self.take(';')
            return [('READ', self.cells[name], p)]
        if text == 'printf':
            for t in ('(', '"%d"', ','):
                self.take(t)
            name, p = self.take()
            self.take(')')
            self.take(';')
            return [('WRITE', self.cells[name], p)]
        if text == 'while':
            lines = [(':', a + (2,))] + self.condition() + [('JMC', a, place)]
            lines += self.statement(a + (1,))
            return lines + [('JMP', a + (2,), place), (':', a)]
        if text == 'if':
            lines = self.condition() + [('JMC', a, place)] + self.statement(a + (1,))
            if self.peek() != 'else':
                return lines + [(':', a)]
            _, q = self.take('else')
            lines += [('JMP', a + (3,), q), (':', a)] + self.statement(a + (2,))
            return lines + [(':', a + (3,))]
        self.take('=')
        lines = self.expression()
        self.take(';')
        return lines + [('STORE', self.cells[text], place)]

    def condition(self):
        self.take('(')
        left = self.expression()
        relation, place = self.take(*RELATIONS)
        right = self.expression()
        self.take(')')
        return left + right + [(RELATIONS[relation], None, place)]

    def expression(self):
        sign = self.take() if self.peek() in SUMS else None
        lines = self.term()
        if sign and sign[0] == '-':
            lines += [('LIT', -1, sign[1]), ('MUL', None, sign[1])]
        while self.peek() in SUMS:
            operator, place = self.take()
            lines += self.term() + [(SUMS[operator], None, place)]
        return lines

    def term(self):
        lines = self.factor()
        while self.peek() in PRODUCTS:
            operator, place = self.take()
            lines += self.factor() + [(PRODUCTS[operator], None, place)]
        return lines

    def factor(self):
        text, place = self.take()
        if text == '(':
            lines = self.expression()
            self.take(')')
            return lines
        if text.isdigit():
            return [('LIT', int(text), place)]
        return [('LOAD', self.cells[text], place)]


def linearised(lines):
    table, number = {}, 1
    for line in lines:
        if line[0] == ':':
            assert line[1] not in table
            table[line[1]] = number
        else:
            number += 1
    for name, operand, place in (line for line in lines if line[0] != ':'):
        yield name, table[operand] if name in ('JMP', 'JMC') else operand, place


def listing(source):
    out = []
    for address, (name, operand, place) in enumerate(linearised(Reader(source).program()), 1):
        line = source.count(b'\n', 0, place) + 1
        column = place - (source.rfind(b'\n', 0, place) + 1) + 1
        words = [address, name] + ([] if operand is None else [operand]) + [place, f'{line}:{column}']
        out.append(' '.join(map(str, words)) + '\n')
    return ''.join(out)


if __name__ == '__main__':
    if sys.argv[1] == '--cases':
        for source in open(sys.argv[2], 'rb').read().split(b'====\n'):
            print(listing(source), end='====\n')
    else:
        print(listing(open(sys.argv[1], 'rb').read()), end='')
