std::vector<a> b; std::vector<int> c;
