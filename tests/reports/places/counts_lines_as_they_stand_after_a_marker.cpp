# 100 "a.cpp"
 @