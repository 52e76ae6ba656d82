permit (principal, action, resource)
wen { true };
permit (principal, action, resource);
