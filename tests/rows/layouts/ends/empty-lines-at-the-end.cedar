permit (principal, action, resource);


