
/**/ int a;