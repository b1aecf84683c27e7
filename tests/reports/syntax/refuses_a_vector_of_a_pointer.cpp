std::vector<a> b;
 std::vector<a*> c;
