permit (principal == ?user, action, resource);
