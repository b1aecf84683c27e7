int a = unsigned int(3) + unsigned int{4} + long long();
