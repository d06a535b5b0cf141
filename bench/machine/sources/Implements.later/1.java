class ImA { public int f() { return 1; } }
