struct s { };
std::vector<s> a;
const std::vector< ::n::t >& b = c;
std :: vector < s > f(std::vector<s> g);
