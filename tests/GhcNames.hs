-- Prints the names that GHC's renamer found in modules, from the files that `ghc -fwrite-ide-info` writes. A line has the file of a name, its first
-- place and the one after it, its kind, the module of its entity or -, its text, and where it is bound or - 0 0.
import Data.IORef
import qualified Data.Map as Map
import GHC.Data.FastString
import GHC.Iface.Ext.Binary
import GHC.Iface.Ext.Types
import GHC.Types.Name
import GHC.Types.Name.Cache
import GHC.Types.SrcLoc
import GHC.Types.Unique.Supply
import GHC.Unit.Module
import System.Environment

main :: IO ()
main = do
  files <- getArgs
  uniques <- mkSplitUniqSupply 'z'
  cache <- newIORef (initNameCache uniques [])
  mapM_ (printFile cache) files

printFile :: IORef NameCache -> FilePath -> IO ()
printFile cache file = do
  found <- readHieFile (NCU (\change -> atomicModifyIORef' cache change)) file
  mapM_ printNode (Map.elems (getAsts (hie_asts (hie_file_result found))))

printNode :: HieAST a -> IO ()
printNode node = do
  let names = concatMap (Map.keys . nodeIdentifiers) (Map.elems (getSourcedNodeInfo (sourcedNodeInfo node)))
  mapM_ (\name -> putStrLn (unwords [placeOf (nodeSpan node), lastOf (nodeSpan node), identifier name])) names
  mapM_ printNode (nodeChildren node)

placeOf :: RealSrcSpan -> String
placeOf s = unwords [unpackFS (srcSpanFile s), show (srcSpanStartLine s), show (srcSpanStartCol s)]

lastOf :: RealSrcSpan -> String
lastOf s = unwords [show (srcSpanEndLine s), show (srcSpanEndCol s)]

identifier :: Identifier -> String
identifier (Left name) = unwords ["module", "-", moduleNameString name, "- 0 0"]
identifier (Right name) = unwords [kind, home, occNameString own, bound (nameSrcSpan name)]
  where
    own = nameOccName name
    home = maybe "-" (moduleNameString . moduleName) (nameModule_maybe name)
    kind
      | isTvOcc own = "type-variable"
      | isTcOcc own = "type"
      | isDataOcc own = "constructor"
      | otherwise = "variable"

bound :: SrcSpan -> String
bound (RealSrcSpan s _) = placeOf s
bound _ = "- 0 0"
