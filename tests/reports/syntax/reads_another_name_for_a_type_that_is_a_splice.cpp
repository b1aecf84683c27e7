using a = [: ^^int :];
using b = typename [: ^^int :]*;
