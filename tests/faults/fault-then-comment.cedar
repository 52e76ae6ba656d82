permit (principal, action, resource) wen { true }; // one ; two
permit (principal, action, resource);
