permit (principals, action, resource);
