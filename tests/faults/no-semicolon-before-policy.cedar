permit (principal, action, resource)
forbid (principal, action, resource);