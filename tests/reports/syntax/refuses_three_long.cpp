long long a; long long long b;
