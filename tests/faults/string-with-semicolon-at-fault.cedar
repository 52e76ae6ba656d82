permit ("a;b", action, resource);
permit (principal, action, resource);
