;# 1 "a.cpp"
