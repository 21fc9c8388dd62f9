class X {
    static int f(int x) {
        return Integer.rotateLeft(x, 7);
    }
}
