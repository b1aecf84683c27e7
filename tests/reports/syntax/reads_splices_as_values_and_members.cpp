int a = [: ^^b :];
int c = [: d :](1) + e.[: f :] + e->[: g :](2)[3];
int h = typename [: i :](4) + typename [: i :]{5}.j;
int k = [:[:l:]:];
