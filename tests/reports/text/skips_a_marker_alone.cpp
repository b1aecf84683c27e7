# 1 "a.cpp"
