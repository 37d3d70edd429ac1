-- Sessions of later runs begin in the second version.
ALTER DATABASE DEFAULT EDITION = v2;
