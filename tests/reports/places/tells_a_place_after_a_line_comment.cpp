// one
// two
 @