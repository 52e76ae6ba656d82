permit (principal, action, resource);
//foo