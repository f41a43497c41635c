#!/usr/bin/env python3
"""Writes a DOS executable that runs a loop of register, memory, stack, call and jump instructions and ends with code 7: loop_exe.py FILE ROUNDS.
Prints how many instructions it executes. Its loop is that of crates/cpu_loop."""
import struct
import sys

# From 0 on, in the code segment: PUSH CS; POP DS; MOV CX,rounds; MOV BX,200h; MOV SI,0.
# From 11 on: MOV AX,[BX+SI]; ADD AX,CX; MOV [BX+SI],AX; PUSH AX; CALL 40h; POP DX; INC SI; AND SI,FFh; CMP SI,0; JNE 11;
# DEC CX; CMP CX,0; JNE 11; MOV AX,4C07h; INT 21h. 257 bytes are read and written from 200h on.
HEAD = bytes.fromhex("0e1f b9 0000 bb 0002 be 0000")
BODY = bytes.fromhex("8b00 01c8 8900 50 e8 0000 5a 46 81e6ff00 83fe00 75 eb 49 83f900 75 e5 b8074c cd21")
# At 40h: PUSH BP; MOV BP,SP; XOR AX,[BP+2]; POP BP; RET.
ROUTINE = bytes.fromhex("55 89e5 334602 5d c3")
HEADER = 64
SIZE = 0x400
STACK = 0x1000
TURNS = 256


def code(rounds):
    head = bytearray(HEAD)
    head[3:5] = struct.pack("<H", rounds)
    body = bytearray(BODY)
    call = len(head) + 7
    struct.pack_into("<h", body, 8, 0x40 - (call + 3))
    turn, round_ = len(head) + 21, len(head) + 27
    body[20] = (len(head) - turn) % 256
    body[26] = (len(head) - round_) % 256
    whole = bytearray(SIZE)
    whole[: len(head) + len(body)] = head + body
    whole[0x40 : 0x40 + len(ROUTINE)] = ROUTINE
    return bytes(whole)


def executable(rounds):
    load = code(rounds)
    total = HEADER + len(load)
    # as many paragraphs behind the code as the stack has, and no relocation
    fields = (total % 512, -(-total // 512), 0, HEADER // 16, STACK // 16, STACK // 16, SIZE // 16, STACK, 0, 0, 0, 0x36, 0)
    # what `tp run` wants besides, which DOS does not read: no overlay, no data, no heap
    block = b"TPX1" + struct.pack("<6HHLHH", 0, 0, 0, 0, 0, 0, STACK, 0, 0, 0)
    return (b"MZ" + struct.pack("<13H", *fields) + block).ljust(HEADER, b"\0") + load


rounds = int(sys.argv[2])
with open(sys.argv[1], "wb") as out:
    out.write(executable(rounds))
print(5 + rounds * (TURNS * 15 + 3) + 2)
