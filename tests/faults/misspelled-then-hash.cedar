permit (principal, action, resource) wen { true };
permit (principal, action, resource);
permit (principal, action, resource);
# more
permit (principal, action, resource);
