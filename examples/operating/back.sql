-- Sessions of later runs begin in the first version again.
ALTER DATABASE DEFAULT EDITION = ora$base;
