permit (principal == User::"a, action, resource);
permit (principal == User::"b", action, resource);
permit (principal, action, resource);
