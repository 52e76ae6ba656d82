@id("owner");
permit (principal, action, resource);