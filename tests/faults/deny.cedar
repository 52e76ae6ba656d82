deny (principal, action, resource);
