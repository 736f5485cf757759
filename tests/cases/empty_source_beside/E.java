// nothing
/**/