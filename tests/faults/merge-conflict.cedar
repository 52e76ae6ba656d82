permit (principal, action, resource);
<<<<<<< HEAD
