<<<<<<< HEAD
permit (principal, action, resource);
=======
permit (principal, action, resource);
>>>>>>> other
