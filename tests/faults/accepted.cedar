permit (principal, action, resource);
