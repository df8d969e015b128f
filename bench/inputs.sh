# Sourced by scripts that rewrite: generators, each of which prints a file.

# So many classes, each below the next.
chain_of() {
    for i in $(seq "$1"); do echo "c$((i - 1))(X) :- c$i(X)."; done
    echo "?(X) :- c0(X)."
}

# Two binary trees of so many classes, asked together: each pair is a query of the union.
pairs_of() {
    for i in $(seq 2 "$1"); do
        echo "a$((i / 2))(X) :- a$i(X)."
        echo "b$((i / 2))(X) :- b$i(X)."
    done
    echo "?(X,Y) :- a1(X), r(X,Y), b1(Y)."
}

# 20 classes with a role each, whose domain and range are classes, and whose values exist.
roles() {
    for i in $(seq 20); do
        echo "c$((i / 2))(X) :- c$i(X)."
        echo "r$i(X,Y), c$((21 - i))(Y) :- c$i(X)."
        echo "c$i(X) :- r$i(X,Y)."
        echo "r0(X,Y) :- r$i(X,Y)."
    done
    echo "?(X) :- c0(X), r0(X,Y), c1(Y)."
}

# So many atoms, each a piece that can be joined with any others: 2^n - 1 aggregates, each with a core of its own.
pieces_of() {
    echo "p(X,Y) :- s(X)."
    printf '?('
    for i in $(seq "$1"); do printf '%sX%d' "$([ "$i" -gt 1 ] && echo ,)" "$i"; done
    printf ') :- '
    for i in $(seq "$1"); do printf '%sp(X%d,Y%d)' "$([ "$i" -gt 1 ] && echo ', ')" "$i" "$i"; done
    echo .
}

# So many classes in a binary tree, and so many roles, whose domains and ranges are classes, and whose values exist.
classes_and_roles() {
    awk -v classes="$1" -v roles="$2" 'BEGIN {
        for (i = 2; i <= classes; i++) print "c" int(i / 2) "(X) :- c" i "(X)."
        for (i = 1; i <= roles; i++) {
            print "r" int(i / 2) "(X,Y) :- r" i "(X,Y)."
            print "c" 1 + (i * 7) % classes "(X) :- r" i "(X,Y)."
            print "c" 1 + (i * 11) % classes "(Y) :- r" i "(X,Y)."
            print "r" i "(X,Y), c" 1 + (i * 13) % classes "(Y) :- c" 1 + (i * 17) % classes "(X)."
        }
    }'
}

# Eight constants of one predicate, which one rule rewrites.
constants() {
    echo "p(X) :- q(X). ? :- p(a), p(b), p(c), p(d), p(e), p(f), p(g), p(h)."
}

# Classes on a path of 40 edges that they imply, and a path of twelve edges.
path_ontology() {
    awk 'BEGIN {
        for (i = 1; i <= 40; i++) print "e(X,Y), p" i - 1 "(Y) :- p" i "(X)."
        printf "?(X0) :- "
        for (i = 0; i < 12; i++) printf "%se(X%d,X%d)", (i ? ", " : ""), i, i + 1
        print "."
    }'
}

small_roles() { classes_and_roles 60 8; echo "?(X) :- c1(X), r1(X,Y), c2(Y)."; }
large_roles() { classes_and_roles 300 40; echo "?(X) :- c1(X), r1(X,Y), c2(Y)."; }
two_answers() { classes_and_roles 200 30; echo "?(X,Y) :- c1(X), r1(X,Y), c2(Y), r1(Y,Z), c3(Z)."; }

# Five atoms of one variable, each of which thirty rules rewrite.
five_atoms() {
    awk 'BEGIN {
        for (k = 1; k <= 5; k++) for (i = 1; i <= 30; i++) print "a" k "(X) :- b" k "_" i "(X)."
        print "?(X) :- a1(X), a2(X), a3(X), a4(X), a5(X)."
    }'
}

# Seven atoms with an answer each, which two rules rewrite.
seven_answers() {
    echo "p(X) :- q(X). p(X) :- s(X)."
    echo "?(A,B,C,D,E,F,G) :- p(A), p(B), p(C), p(D), p(E), p(F), p(G)."
}

# Paths without end.
paths() {
    echo "e(X,Z) :- e(X,Y), e(Y,Z). ? :- e(a,b)."
}

# Edges lead from a node to one that a fixed rule of arithmetic gives, so each run is the same.
edges() {
    awk -v n="$1" -v nodes="$2" 'BEGIN {
        x = 1
        for (i = 0; i < n; i++) {
            x = (x * 1664525 + 1013904223) % 4294967296
            from = int(x / 256) % nodes
            x = (x * 1664525 + 1013904223) % 4294967296
            print "e(n" from ",n" int(x / 256) % nodes ")."
        }
    }'
}

labels() {
    awk -v n="$1" 'BEGIN { for (i = 0; i < n; i++) print "l(n" i * 20 ")." }'
}

# 300,000 edges among 100,000 nodes, of which 5,000 have a label, and a join of five atoms.
walks() {
    edges 300000 100000
    labels 5000
    echo "?(X,W) :- l(X), e(X,Y), e(Y,Z), l(Z), e(Z,W)."
}

# A million edges, and a union of two members.
union() {
    edges 1000000 500000
    labels 1000
    echo "l(X) :- m(X). m(n7). ?(X,Y) :- l(X), e(X,Y)."
}

# Ten megabytes of rules and facts, and a query that one rule rewrites.
long_file() {
    awk 'BEGIN {
        for (i = 1; i <= 4000; i++) print "predicate_" i "(X,Y), predicate_" i + 4000 "(Y,Z) :- predicate_" i + 8000 "(X)."
        for (i = 0; i < 190000; i++) print "predicate_" i % 9000 + 1 "(constant_" i * 7 % 100000 ",constant_" i * 11 % 100000 ")."
        print "?(X) :- predicate_1(X,Y), predicate_4001(Y,Z)."
    }'
}
