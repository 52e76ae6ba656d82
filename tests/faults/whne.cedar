permit (principal, action, resource) whne { true };
