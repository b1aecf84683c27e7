int b = static_cast<int>(1); int c = reinterpret_cast<int>(1);
