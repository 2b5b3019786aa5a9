int id(int a) { return a; }
