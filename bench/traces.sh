# Functions that write made traces to standard output. The other scripts read this file. None of the traces has a move.

# A million mallocs and frees of blocks of so many bytes at least, and so many more: a call frees its root's block or gives
# it one. The draws are by a fixed rule. With large blocks over a few roots the log rolls, since its old chunks are soon
# needless; over many it is rewritten.
blocks() {
    awk -v roots="$1" -v least="$2" -v more="$3" 'BEGIN {
        print "pool 1 1024"
        state = 1
        for (i = 0; i < 1000000; i++) {
            state = state * 16807 % 2147483647
            root = state % roots
            if (held[root]) { print "0 0 f " root; held[root] = 0 }
            else { print "0 0 m " root " " (least + state % more); held[root] = 1 }
        }
    }'
}

# Three blocks of 16384 bytes have room beside a large one. One stays with its root; of the others a seat is given one, the
# next seat frees it, so that it lies on that seat's stack, and the seat behind that one finds it there.
stolen() {
    awk 'BEGIN {
        print "pool 1 16"
        print "0 0 m 0 131072"
        print "0 0 m 1 16384"
        print "0 0 m 2 16384"
        print "0 0 m 3 16384"
        print "0 0 f 3"
        for (i = 0; i < 999994; i += 2) { print (i % 64) " 0 m 3 16384"; print ((i + 1) % 64) " 0 f 3" }
    }'
}

# A slab whose one block is of 64 bytes takes the class of 1024 bytes for a request, loses the old block, and takes the class
# of 64 bytes again for the next one.
morphs() {
    awk 'BEGIN {
        print "pool 1 16"
        print "0 0 m 0 131072"
        print "0 0 m 1 64"
        for (i = 0; i < 999996; i += 4) { print "0 0 m 2 1000"; print "0 0 f 1"; print "0 0 m 1 64"; print "0 0 f 2" }
    }'
}

# Words of 64 blocks of 1024 bytes, written and read in turn.
words() {
    awk 'BEGIN {
        print "pool 1 16"
        for (i = 0; i < 64; i++) print "0 0 m " i " 1024"
        for (i = 0; i < 499968; i++) { print "0 0 w " (i % 64) " " (i % 128) " " i; print "0 0 r " (i % 64) " " (i % 128) }
    }'
}

# So many full slabs of 15 blocks of 4096 bytes, and one with a block; then twelve mallocs and their frees over and over, so
# that blocks go through the seat's stack and past it.
full() {
    awk -v slabs="$1" 'BEGIN {
        print "pool 1 1024"
        for (i = 0; i < 15 * slabs + 1; i++) print "0 0 m " i " 4096"
        for (i = 0; i < 41666; i++) {
            for (k = 0; k < 12; k++) print "0 0 m " (4000 + k) " 4096"
            for (k = 0; k < 12; k++) print "0 0 f " (4000 + k)
        }
    }'
}

# Slabs of eight classes are filled and freed again but for twelve blocks spread over each, so that few blocks live in them and none
# of 5 to 16 KiB has a place; the rest of the arena is taken. Then requests of 5 to 16 KiB, which no slab can serve, and frees and
# mallocs of 16 bytes: so many calls in all, and at most so many slabs.
unfit() {
    awk -v calls="$1" -v most="$2" '
    function say(text) { if (made < calls) { print "0 0 " text; made++ } }
    function draw(n) { state = (state * 16807) % 2147483647; return state % n }
    BEGIN {
        state = 1; print "pool 1 1024"
        split("320 384 448 512 640 768 896 1024", size, " "); split("198 165 141 124 99 82 70 62", capacity, " ")
        for (r = 0; r < 80; r++) say("m " r " 16")
        for (r = 4095; r >= 80; r--) free[++spare] = r
        slabs = 1
        for (c = 1; c <= 8; c++) {
            number = int(spare / capacity[c]); if (number > most - slabs) number = most - slabs
            if (number <= 0) continue
            slabs += number; all = number * capacity[c]
            for (k = 0; k < all; k++) { held[k] = free[spare--]; say("m " held[k] " " size[c]) }
            for (k = 0; k < all; k++) {
                block = k % capacity[c]; keep = 0
                for (j = 0; j < 12; j++) if (int((5120 * j + size[c] - 1) / size[c]) == block) keep = 1
                if (!keep) { say("f " held[k]); free[++spare] = held[k] }
            }
        }
        big = free[spare--]; say("m " big " " (1020 - 4 * slabs) * 16384)
        while (made < calls) {
            if (draw(4) == 0) { r = draw(80); say("f " r); say("m " r " 16") }
            else say("m " free[1 + draw(spare)] " " 5120 + draw(11265))
        }
    }'
}

# A slab of three blocks of 16384 bytes comes for each three of six mallocs, and goes with the last of its blocks.
slabs() {
    awk 'BEGIN {
        print "pool 1 1024"
        for (i = 0; i < 999996; i += 12) {
            for (k = 0; k < 6; k++) print "0 0 m " k " 16384"
            for (k = 0; k < 6; k++) print "0 0 f " k
        }
    }'
}

# So many calls over so many arenas, by so many threads: the calls go to the arenas in turn, and those of a turn to one
# thread after another. A call frees its root's block or gives it one; the draws are by a fixed rule.
calls() {
    awk -v count="$1" -v arenas="$2" -v threads="$3" 'BEGIN {
        print "pool " arenas " 1024"
        state = 1
        for (i = 0; i < count; i++) {
            state = state * 16807 % 2147483647
            arena = i % arenas
            thread = i % threads
            root = state % 1000
            if (held[arena, root]) { print thread " " arena " f " root; held[arena, root] = 0 }
            else { print thread " " arena " m " root " " (1 + state % 2048); held[arena, root] = 1 }
        }
    }'
}

# So many calls of one arena by so many threads in turn, of which all but the first are refused, since the root names a block.
refused() {
    awk -v count="$1" -v threads="$2" 'BEGIN {
        print "pool 1 16"
        for (i = 0; i < count; i++) print (i % threads) " 0 m 7 64"
    }'
}

# The largest pool of version 1, in which each arena has 255 slabs, all full: 3825 blocks of 4096 bytes, of which a slab has 15.
pool_of_full_slabs() {
    awk 'BEGIN {
        print "pool 16 1024"
        for (arena = 0; arena < 16; arena++)
            for (root = 0; root < 3825; root++) print "0 " arena " m " root " 4096"
    }'
}
