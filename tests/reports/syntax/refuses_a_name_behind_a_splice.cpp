int a = [: b :]; int c = [: b :]::d;
