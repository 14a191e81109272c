from weightrose.command import main

raise SystemExit(main())
