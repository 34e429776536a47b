"""Two graphs in whose answers the numbers differ, so that exchanged ones show.

EXAMPLE has three references with several paths each, some shadowed, in three
files; from each of them the number of returned paths and all four statistics of
a direct search differ and are not 0, and so do those of a stitched search. On A
and B of document 01 most of them are 0 or 1. LINE is the same for linear search.

All three numbers F, N and M of each graph differ.
"""

from images import (DROP_SCOPES, POP, POP_SCOPED, PUSH, PUSH_SCOPED, REMOVED,
                    ROOT_AND_JUMP, SCOPE, Edge, Graph, Node)

EXAMPLE = Graph(3, ROOT_AND_JUMP + [
    # file 0: an exported scope 2, a scope 3, definitions of 7 and 8, references
    # 6 and 7, and 8, which pushes a scoped 8 behind reference 7
    Node(SCOPE, 0, flag=True), Node(SCOPE, 0), Node(POP, 0, 7, flag=True),
    Node(POP, 0, 8, flag=True), Node(PUSH, 0, 7, flag=True), Node(PUSH, 0, 7, flag=True),
    Node(PUSH_SCOPED, 0, 8, scope=2),
    # file 1: an exported scope 9, a definition of 7; 11 takes the 8 off, 12
    # pushes a 9 with a second scope, 13 takes it off, 14 drops the scopes
    Node(SCOPE, 1, flag=True), Node(POP, 1, 7, flag=True), Node(POP_SCOPED, 1, 8),
    Node(PUSH_SCOPED, 1, 9, scope=9), Node(POP_SCOPED, 1, 9), Node(DROP_SCOPES, 1),
    # file 2: a reference to 9, an exported scope, a definition of 9
    Node(PUSH, 2, 9, flag=True), Node(SCOPE, 2, flag=True), Node(POP, 2, 9, flag=True),
    Node(REMOVED)],
    [Edge(6, 2), Edge(6, 2, 1), Edge(6, 3, 1), Edge(2, 0), Edge(2, 4), Edge(2, 4, -1),
     Edge(2, 5), Edge(3, 4), Edge(4, 4), Edge(7, 8), Edge(8, 2),
     Edge(0, 9), Edge(9, 9, -2), Edge(9, 10, 2), Edge(9, 11), Edge(11, 1), Edge(11, 14),
     Edge(14, 10), Edge(14, 14, -9), Edge(11, 12), Edge(12, 13), Edge(13, 1), None,
     Edge(15, 16), Edge(16, 16, 3), Edge(16, 0), Edge(16, 17, 5), Edge(16, 17, -5)])

# Behind reference 2 the 8 is pushed, so that at scope 3, met twice, another edge
# can be appended each time; definitions 6 and 8 are met one after the other.
LINE = Graph(1, ROOT_AND_JUMP + [
    Node(PUSH, symbol=7, flag=True), Node(SCOPE), Node(PUSH, symbol=8),
    Node(POP, symbol=8, flag=True), Node(POP, symbol=7, flag=True),
    Node(PUSH, symbol=9, flag=True), Node(POP, symbol=9, flag=True)],
    [Edge(2, 3), Edge(3, 4), Edge(4, 3), Edge(3, 5), Edge(5, 6), Edge(6, 6), Edge(6, 7),
     Edge(7, 8), Edge(7, 6), Edge(8, 8), Edge(8, 5), Edge(8, 3)])
