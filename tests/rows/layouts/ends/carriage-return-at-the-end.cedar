permit (principal, action, resource);
