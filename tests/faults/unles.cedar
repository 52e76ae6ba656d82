permit (principal, action, resource) unles { true };
