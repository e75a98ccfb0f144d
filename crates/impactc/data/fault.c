int main(void){
  int a=7;
  putint(a);
  putint(a/0);
  return 0;
}
