int same(int n);
