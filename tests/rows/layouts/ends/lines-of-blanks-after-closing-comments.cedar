permit (principal, action, resource);
//foo
//bar   
 
 
