#!/usr/bin/env python3
"""deep_nests.py TP FIRST COUNT: writes random programs that nest deep, and looks where TP (the program `tp`) says that one is nested too deep.

A second reader of the limit on open constructs, written from docs/language.md and docs/DECISIONS.md alone: it counts what each token opens as it writes
the program, and so knows which token opens construct 201. The same seed gives the same program. The last line is 'N programs, M of them too deep, K wrong'.
"""

import random
import subprocess
import sys
import tempfile

LIMIT = 200
MOST_TOKENS = 6000


class Writer:
    """A program token by token, with how many constructs are open, and the first token that opened one too many."""

    def __init__(self, seed):
        self.random = random.Random(seed)
        self.tokens = []
        self.open = 0
        self.too_deep = None
        # how deep the program tries to nest
        self.target = self.random.choice([150, 195, 199, 200, 201, 205, 230])

    def write(self, *tokens):
        self.tokens += tokens

    def begin(self, token):
        self.tokens.append(token)
        self.open += 1
        if self.open > LIMIT and self.too_deep is None:
            self.too_deep = len(self.tokens)

    def end(self, *tokens, count=1):
        self.tokens += tokens
        self.open -= count

    def chance(self, part):
        return self.random.random() < part and len(self.tokens) < MOST_TOKENS

    def may_nest(self):
        return self.open < self.target and len(self.tokens) < MOST_TOKENS

    def any_of(self, *ways):
        self.random.choice(ways)()

    # ---- expressions

    def expression(self):
        self.simple()
        if self.chance(0.1):
            self.write('=', '1')

    def chain(self, part, operators):
        """Parts with operators between them, each of which is open to the end of the chain."""
        part()
        count = 0
        while self.chance(0.25):
            self.begin(self.random.choice(operators))
            count += 1
            part()
        self.end(count=count)

    def simple(self):
        self.chain(self.term, ['+', '-', 'or'])

    def term(self):
        self.chain(self.factor, ['*', 'div', 'and'])

    def listed(self, part):
        part()
        while self.chance(0.3):
            self.write(',')
            part()

    def factor(self):
        if self.may_nest():
            self.any_of(self.group, self.negation, self.set_constructor, self.designator, self.call)
        else:
            self.write('1')

    def group(self):
        self.begin('(')
        self.expression()
        self.end(')')

    def negation(self):
        self.begin('not')
        self.factor()
        self.end()

    def set_constructor(self):
        self.begin('[')
        self.listed(self.expression)
        self.end(']')

    def call(self):
        self.designator()
        self.begin('(')
        self.listed(self.expression)
        self.end(')')

    def designator(self):
        """Each selector is open to the end of the designator."""
        self.write('d')
        count = 0
        while self.chance(0.5):
            count += 1
            way = self.random.choice('.^[')
            self.begin(way)
            if way == '.':
                self.write('f')
            elif way == '[':
                self.expression()
                while self.chance(0.3):
                    self.begin(',')
                    count += 1
                    self.expression()
                self.write(']')
        self.end(count=count)

    # ---- statements

    def condition(self):
        if self.chance(0.15):
            self.expression()
        else:
            self.write('1')

    def statement(self):
        if self.may_nest():
            self.any_of(self.compound, self.choice, self.loop, self.repetition, self.counting, self.opened, self.cases, self.assignment, self.call)
        else:
            self.write('d', ':=', '1')

    def statements(self):
        self.statement()
        while self.chance(0.3):
            self.write(';')
            self.statement()

    def compound(self):
        self.begin('begin')
        self.statements()
        self.end('end')

    def choice(self):
        self.begin('if')
        self.condition()
        self.write('then')
        if self.chance(0.5):
            self.compound()
            self.write('else')
        self.statement()
        self.end()

    def loop(self):
        self.begin('while')
        self.condition()
        self.write('do')
        self.statement()
        self.end()

    def repetition(self):
        self.begin('repeat')
        self.statements()
        self.write('until')
        self.condition()
        self.end()

    def counting(self):
        self.begin('for')
        self.write('d', ':=')
        self.condition()
        self.write('to')
        self.condition()
        self.write('do')
        self.statement()
        self.end()

    def opened(self):
        self.begin('with')
        self.designator()
        count = 1
        while self.chance(0.5):
            self.begin(',')
            count += 1
            self.designator()
        self.write('do')
        self.statement()
        self.end(count=count)

    def cases(self):
        self.begin('case')
        self.condition()
        self.write('of', '1', ':')
        self.statement()
        if self.chance(0.3):
            self.write(';', '2', ':')
            self.statement()
        self.end('end')

    def assignment(self):
        self.designator()
        self.write(':=')
        self.expression()

    # ---- types and declarations

    def constant(self):
        if self.may_nest() and self.chance(0.6):
            self.begin('(')
            self.constant()
            self.end(')')
        else:
            self.write('1')

    def bound(self):
        """One that begins with a number, so that it is no name of a type."""
        self.write('1')
        count = 0
        while self.chance(0.15):
            self.begin('+')
            count += 1
            self.constant()
        self.end(count=count)

    def range(self):
        self.bound()
        self.write('..')
        self.bound()

    def type(self):
        if self.may_nest():
            self.any_of(self.array, self.record, self.set, self.enumeration, self.string, self.procedural, self.range)
        else:
            self.write('Byte')

    def array(self):
        if self.chance(0.2):
            self.write('packed')
        self.begin('array')
        self.begin('[')
        self.range()
        self.end(']')
        self.write('of')
        self.type()
        self.end()

    def fields(self):
        self.write('f', ':')
        self.type()

    def record(self):
        self.begin('record')
        self.fields()
        while self.chance(0.3):
            self.write(';')
            self.fields()
        self.end('end')

    def set(self):
        self.begin('set')
        self.write('of')
        self.type()
        self.end()

    def enumeration(self):
        self.begin('(')
        self.end('e', ')')

    def string(self):
        self.write('string')
        self.begin('[')
        self.bound()
        self.end(']')

    def parameters(self):
        if self.chance(0.5):
            self.begin('(')
            self.end('p', ':', 'Byte', ')')

    def procedural(self):
        self.begin('procedure')
        self.parameters()
        self.end()

    def object(self):
        self.begin('object')
        if self.chance(0.5):
            self.begin('(')
            self.end('o', ')')
        while self.chance(0.4):
            self.fields()
            self.write(';')
        while self.chance(0.5):
            self.begin(self.random.choice(['procedure', 'constructor', 'destructor']))
            self.write('m')
            self.parameters()
            self.end()
            self.write(';')
        self.end('end')

    def first_value(self):
        if self.may_nest() and self.chance(0.8):
            self.begin('(')
            if self.chance(0.3):
                self.write('f', ':')
                self.first_value()
            else:
                self.listed(self.first_value)
            self.end(')')
        else:
            self.write('1')

    def declaration(self):
        way = self.random.choice(['type', 'object', 'var', 'const', 'first', 'routine'])
        if way == 'routine':
            if self.may_nest():
                self.routine()
            return
        self.write({'object': 'type', 'first': 'const'}.get(way, way), 'n', ':' if way in ('var', 'first') else '=')
        if way == 'object':
            self.object()
        elif way == 'const':
            self.constant()
        else:
            self.type()
        if way == 'first':
            self.write('=')
            self.first_value()
        self.write(';')

    def declarations(self):
        while self.chance(0.6):
            self.declaration()

    def routine(self, depth=0):
        """A procedure, with so many inside one another that hold nothing else."""
        self.begin('procedure')
        self.write('r')
        self.parameters()
        self.write(';')
        if depth > 0:
            self.routine(depth - 1)
        else:
            self.declarations()
        self.begin('begin')
        if depth == 0 and self.chance(0.3):
            self.statement()
        self.end('end')
        self.end()
        self.write(';')

    def program(self):
        if self.chance(0.2):
            self.routine(self.random.randint(1, LIMIT))
        self.declarations()
        self.begin('begin')
        self.statements()
        self.end('end')
        self.write('.')


def answer_of(program, folder, tokens):
    """What `tp mean` says of these tokens, each on a line of its own."""
    with open(f'{folder}/a.pas', 'w', encoding='ascii') as text:
        text.write('\n'.join(tokens) + '\n')
    done = subprocess.run([program, 'mean', 'a'], cwd=folder, stdin=subprocess.DEVNULL, capture_output=True, text=True, check=False)
    return done.stderr.strip()


def is_right(answer, too_deep):
    if too_deep is None:
        return not answer.startswith(('tp: TooDeep', 'tp: Syntax'))
    return answer == f'tp: TooDeep a.pas:{too_deep}:1'


def main(program, first, count):
    deep = wrong = 0
    with tempfile.TemporaryDirectory() as folder:
        for seed in range(first, first + count):
            writer = Writer(seed)
            writer.program()
            answer = answer_of(program, folder, writer.tokens)
            deep += writer.too_deep is not None
            if not is_right(answer, writer.too_deep):
                wrong += 1
                print(f'seed {seed}: token {writer.too_deep} opens one too many, but: {answer}')
    print(f'{count} programs, {deep} of them too deep, {wrong} wrong')
    return wrong > 0


if __name__ == '__main__':
    sys.setrecursionlimit(100_000)
    sys.exit(main(sys.argv[1], int(sys.argv[2]), int(sys.argv[3])))
