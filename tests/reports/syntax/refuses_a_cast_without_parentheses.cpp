int b = static_cast<int>(1); int c = static_cast<int> 1;
