class X {
    static int f(byte x) {
        int count = 0;
        for (int word = x & 255; word != 0; word &= word - 1) {
            count++;
        }
        return count;
    }
}
